"""What CloudTrail calls otherwise than IAM, and what calls are of: tables, by the documentation of each service."""

from typing import Dict, List, Tuple

# The prefix of a service's actions, where the first label of `eventSource` is another.
PREFIXES = {"monitoring": "cloudwatch", "email": "ses", "tagging": "tag", "appstream2": "appstream"}
# Services whose event names end with the version of the API, as CreateFunction20150331.
DATED = ("lambda", "cloudfront")

# The actions of event names that are none; several are all wanted. An empty list: the call wants no permission.
ACTIONS: Dict[str, Dict[str, List[str]]] = {
    "s3": {
        "ListBuckets": ["ListAllMyBuckets"],
        "HeadBucket": ["ListBucket"],
        "ListObjects": ["ListBucket"],
        "ListObjectsV2": ["ListBucket"],
        "ListObjectVersions": ["ListBucketVersions"],
        "ListMultipartUploads": ["ListBucketMultipartUploads"],
        "ListParts": ["ListMultipartUploadParts"],
        "HeadObject": ["GetObject"],
        "SelectObjectContent": ["GetObject"],
        "GetObjectAttributes": ["GetObject", "GetObjectAttributes"],
        "PostObject": ["PutObject"],
        "CreateMultipartUpload": ["PutObject"],
        "InitiateMultipartUpload": ["PutObject"],
        "UploadPart": ["PutObject"],
        "CompleteMultipartUpload": ["PutObject"],
        "DeleteObjects": ["DeleteObject"],
        "DeleteMultipleObjects": ["DeleteObject"],
        "GetBucketCors": ["GetBucketCORS"],
        "PutBucketCors": ["PutBucketCORS"],
        "DeleteBucketCors": ["PutBucketCORS"],
        "GetBucketEncryption": ["GetEncryptionConfiguration"],
        "PutBucketEncryption": ["PutEncryptionConfiguration"],
        "DeleteBucketEncryption": ["PutEncryptionConfiguration"],
        "GetBucketLifecycle": ["GetLifecycleConfiguration"],
        "GetBucketLifecycleConfiguration": ["GetLifecycleConfiguration"],
        "PutBucketLifecycle": ["PutLifecycleConfiguration"],
        "PutBucketLifecycleConfiguration": ["PutLifecycleConfiguration"],
        "DeleteBucketLifecycle": ["PutLifecycleConfiguration"],
        "GetBucketReplication": ["GetReplicationConfiguration"],
        "PutBucketReplication": ["PutReplicationConfiguration"],
        "DeleteBucketReplication": ["PutReplicationConfiguration"],
        "GetBucketNotificationConfiguration": ["GetBucketNotification"],
        "PutBucketNotificationConfiguration": ["PutBucketNotification"],
        "GetBucketAccelerateConfiguration": ["GetAccelerateConfiguration"],
        "PutBucketAccelerateConfiguration": ["PutAccelerateConfiguration"],
        "GetBucketAnalyticsConfiguration": ["GetAnalyticsConfiguration"],
        "ListBucketAnalyticsConfigurations": ["GetAnalyticsConfiguration"],
        "PutBucketAnalyticsConfiguration": ["PutAnalyticsConfiguration"],
        "DeleteBucketAnalyticsConfiguration": ["PutAnalyticsConfiguration"],
        "GetBucketInventoryConfiguration": ["GetInventoryConfiguration"],
        "ListBucketInventoryConfigurations": ["GetInventoryConfiguration"],
        "PutBucketInventoryConfiguration": ["PutInventoryConfiguration"],
        "DeleteBucketInventoryConfiguration": ["PutInventoryConfiguration"],
        "GetBucketMetricsConfiguration": ["GetMetricsConfiguration"],
        "ListBucketMetricsConfigurations": ["GetMetricsConfiguration"],
        "PutBucketMetricsConfiguration": ["PutMetricsConfiguration"],
        "DeleteBucketMetricsConfiguration": ["PutMetricsConfiguration"],
        "GetBucketIntelligentTieringConfiguration": ["GetIntelligentTieringConfiguration"],
        "ListBucketIntelligentTieringConfigurations": ["GetIntelligentTieringConfiguration"],
        "PutBucketIntelligentTieringConfiguration": ["PutIntelligentTieringConfiguration"],
        "DeleteBucketIntelligentTieringConfiguration": ["PutIntelligentTieringConfiguration"],
        "GetPublicAccessBlock": ["GetBucketPublicAccessBlock"],
        "PutPublicAccessBlock": ["PutBucketPublicAccessBlock"],
        "DeletePublicAccessBlock": ["PutBucketPublicAccessBlock"],
        "DeleteBucketPublicAccessBlock": ["PutBucketPublicAccessBlock"],
        "DeleteAccountPublicAccessBlock": ["PutAccountPublicAccessBlock"],
        "GetObjectLockConfiguration": ["GetBucketObjectLockConfiguration"],
        "PutObjectLockConfiguration": ["PutBucketObjectLockConfiguration"],
        "DeleteBucketTagging": ["PutBucketTagging"],
        "DeleteBucketOwnershipControls": ["PutBucketOwnershipControls"],
    },
    "lambda": {"Invoke": ["InvokeFunction"], "InvokeWithResponseStream": ["InvokeFunction"]},
    "kms": {"ReEncrypt": ["ReEncryptFrom", "ReEncryptTo"]},
    "sqs": {
        "SendMessageBatch": ["SendMessage"],
        "DeleteMessageBatch": ["DeleteMessage"],
        "ChangeMessageVisibilityBatch": ["ChangeMessageVisibility"],
    },
    "sns": {"PublishBatch": ["Publish"]},
    "sts": {"GetCallerIdentity": [], "GetSessionToken": []},
}
# Calls of which the event does not tell what they ask for: each is of several actions or resources that it leaves out.
UNTOLD = {
    "dynamodb": (
        "TransactWriteItems",
        "TransactGetItems",
        "ExecuteStatement",
        "BatchExecuteStatement",
        "ExecuteTransaction",
    ),
    "ec2": ("RunInstances",),
    "secretsmanager": ("BatchGetSecretValue",),
    "apigateway": ("*",),
}
# The actions on one version of an object.
OF_VERSION = {
    "GetObject": "GetObjectVersion",
    "DeleteObject": "DeleteObjectVersion",
    "GetObjectAcl": "GetObjectVersionAcl",
    "PutObjectAcl": "PutObjectVersionAcl",
    "GetObjectTagging": "GetObjectVersionTagging",
    "PutObjectTagging": "PutObjectVersionTagging",
    "DeleteObjectTagging": "DeleteObjectVersionTagging",
    "GetObjectAttributes": "GetObjectVersionAttributes",
}
# Of an action the members of its parameters with which it wants a further action on the same resource.
FURTHER: Dict[str, List[Tuple[str, str]]] = {
    "s3:PutObject": [("x-amz-acl", "s3:PutObjectAcl"), ("x-amz-tagging", "s3:PutObjectTagging")],
    "sts:AssumeRole": [("tags", "sts:TagSession"), ("sourceIdentity", "sts:SetSourceIdentity")],
}
# Events that copy an object: its source, which a header names, is read, and what comes of it is written.
COPIES = ("CopyObject", "UploadPartCopy")
SOURCE = "x-amz-copy-source"

# The errors by which a service refuses for want of access.
DENIED = (
    "AccessDenied",
    "AccessDeniedException",
    "UnauthorizedOperation",
    "UnauthorizedException",
    "AuthorizationError",
    "AuthorizationErrorException",
    "UnauthorizedAccess",
    "NotAuthorized",
    "NotAuthorizedException",
    "KMS.AccessDeniedException",
)

# Keys that the parameters of a call give, each with its member.
PARAMETERS: Dict[str, Dict[str, str]] = {
    "s3:ListBucket": {"s3:prefix": "prefix", "s3:delimiter": "delimiter", "s3:max-keys": "max-keys"},
    "s3:ListBucketVersions": {"s3:prefix": "prefix", "s3:delimiter": "delimiter", "s3:max-keys": "max-keys"},
    "s3:GetObjectVersion": {"s3:VersionId": "versionId"},
    "s3:DeleteObjectVersion": {"s3:VersionId": "versionId"},
    "s3:PutObject": {
        f"s3:{it}": it
        for it in (
            "x-amz-acl",
            "x-amz-server-side-encryption",
            "x-amz-server-side-encryption-aws-kms-key-id",
            "x-amz-storage-class",
        )
    },
    "s3:PutObjectAcl": {"s3:x-amz-acl": "x-amz-acl"},
    "sts:AssumeRole": {"sts:ExternalId": "externalId", "sts:RoleSessionName": "roleSessionName"},
    **{
        f"iam:{verb}{of}Policy": {"iam:PolicyARN": "policyArn"}
        for verb in ("Attach", "Detach")
        for of in ("User", "Role", "Group")
    },
    "iam:PutRolePermissionsBoundary": {"iam:PermissionsBoundary": "permissionsBoundary"},
    "iam:PutUserPermissionsBoundary": {"iam:PermissionsBoundary": "permissionsBoundary"},
    "iam:CreateRole": {"iam:PermissionsBoundary": "permissionsBoundary"},
    "iam:CreateUser": {"iam:PermissionsBoundary": "permissionsBoundary"},
}

# Kinds of resources: what `resources[].type` calls them, and their ARN, with members of the parameters in it. 'p', 'r' and 'a'
# are the partition, the region and the account. A value that is an ARN stands for all that is before it.
TYPES: Dict[str, Tuple[str, str]] = {
    "object": ("AWS::S3::Object", "arn:{p}:s3:::{bucketName}/{key}"),
    "copy": ("", "arn:{p}:s3:::{bucketName}/{key}"),
    "bucket": ("AWS::S3::Bucket", "arn:{p}:s3:::{bucketName}"),
    "key": ("AWS::KMS::Key", "arn:{p}:kms:{r}:{a}:key/{keyId}"),
    "target-key": ("", "arn:{p}:kms:{r}:{a}:key/{targetKeyId}"),
    "source-key": ("", "arn:{p}:kms:{r}:{a}:key/{sourceKeyId}"),
    "destination-key": ("", "arn:{p}:kms:{r}:{a}:key/{destinationKeyId}"),
    "alias": ("", "arn:{p}:kms:{r}:{a}:{aliasName}"),
    "queue": ("AWS::SQS::Queue", "arn:{p}:sqs:{r}:{a}:{queueUrl}"),
    "named-queue": ("AWS::SQS::Queue", "arn:{p}:sqs:{r}:{a}:{queueName}"),
    "topic": ("AWS::SNS::Topic", "arn:{topicArn}"),
    "target": ("", "arn:{targetArn}"),
    "resource": ("", "arn:{resourceArn}"),
    "tagged": ("", "arn:{resource}"),
    "named-topic": ("", "arn:{p}:sns:{r}:{a}:{name}"),
    "index": ("", "arn:{p}:dynamodb:{r}:{a}:table/{tableName}/index/{indexName}"),
    "table": ("AWS::DynamoDB::Table", "arn:{p}:dynamodb:{r}:{a}:table/{tableName}"),
    "tables": ("AWS::DynamoDB::Table", "arn:{p}:dynamodb:{r}:{a}:table/{requestItems}"),
    "stream": ("AWS::DynamoDB::Stream", "arn:{streamArn}"),
    "backup": ("", "arn:{backupArn}"),
    "qualified": ("", "arn:{p}:lambda:{r}:{a}:function:{functionName}:{qualifier}"),
    "function": ("AWS::Lambda::Function", "arn:{p}:lambda:{r}:{a}:function:{functionName}"),
    "layer": ("", "arn:{p}:lambda:{r}:{a}:layer:{layerName}"),
    "mapping": ("", "arn:{p}:lambda:{r}:{a}:event-source-mapping:{uUID}"),
    "secret": ("AWS::SecretsManager::Secret", "?secret:{p}:{r}:{a}:{secretId}"),
    "made-secret": ("AWS::SecretsManager::Secret", "arn:{<arn}"),
    "parameter": ("", "arn:{p}:ssm:{r}:{a}:parameter/{name}"),
    "parameters": ("", "arn:{p}:ssm:{r}:{a}:parameter/{names}"),
    "path": ("", "arn:{p}:ssm:{r}:{a}:parameter/{path}"),
    "document": ("", "arn:{p}:ssm:{r}:{a}:document/{name}"),
    "session": ("", "arn:{p}:ec2:{r}:{a}:instance/{target}"),
    "user": ("", "?iam:{a}:user/{userName}"),
    "role": ("", "?iam:{a}:role/{roleName}"),
    "group": ("", "?iam:{a}:group/{groupName}"),
    "profile": ("", "?iam:{a}:instance-profile/{instanceProfileName}"),
    "policy": ("", "arn:{policyArn}"),
    "new-user": ("", "arn:{p}:iam::{a}:user{path=/}{userName}"),
    "new-role": ("", "arn:{p}:iam::{a}:role{path=/}{roleName}"),
    "new-group": ("", "arn:{p}:iam::{a}:group{path=/}{groupName}"),
    "new-profile": ("", "arn:{p}:iam::{a}:instance-profile{path=/}{instanceProfileName}"),
    "new-policy": ("", "arn:{p}:iam::{a}:policy{path=/}{policyName}"),
    "saml": ("", "arn:{sAMLProviderArn}"),
    "oidc": ("", "arn:{openIDConnectProviderArn}"),
    "mfa": ("", "arn:{serialNumber}"),
    "caller": ("", "{user}"),
    "assumed": ("AWS::IAM::Role", "arn:{roleArn}"),
    "federated": ("", "arn:{p}:sts::{a}:federated-user/{name}"),
    "instance": ("", "arn:{p}:ec2:{r}:{a}:instance/{instanceId}"),
    "instances": ("", "arn:{p}:ec2:{r}:{a}:instance/{instancesSet.items.instanceId}"),
    "volume": ("", "arn:{p}:ec2:{r}:{a}:volume/{volumeId}"),
    "snapshot": ("", "arn:{p}:ec2:{r}::snapshot/{snapshotId}"),
    "image": ("", "arn:{p}:ec2:{r}::image/{imageId}"),
    "security-group": ("", "arn:{p}:ec2:{r}:{a}:security-group/{groupId}"),
    "interface": ("", "arn:{p}:ec2:{r}:{a}:network-interface/{networkInterfaceId}"),
    "vpc": ("", "arn:{p}:ec2:{r}:{a}:vpc/{vpcId}"),
    "subnet": ("", "arn:{p}:ec2:{r}:{a}:subnet/{subnetId}"),
    "address": ("", "arn:{p}:ec2:{r}:{a}:elastic-ip/{allocationId}"),
    "key-pair": ("", "arn:{p}:ec2:{r}:{a}:key-pair/{keyName}"),
    "by-id": ("", "{resourcesSet.items.resourceId}"),
}
# The values that a member may have; others do not name the resource.
VALUES = {
    "bucketName": r"[A-Za-z0-9][A-Za-z0-9._-]*",
    "keyId": r"(?!alias/)[A-Za-z0-9-]+|arn:[^:]*:kms:[^:]*:[0-9]*:key/.+",
    "aliasName": r"alias/.+",
    "target": r"i-[0-9a-f]+",
    "name": r"(?!AWS-|Amazon-).+",
    "instanceId": r"i-[0-9a-f]+",
    "volumeId": r"vol-[0-9a-f]+",
    "functionName": r"[A-Za-z0-9_-]+(:[A-Za-z0-9$_-]+)?|arn:.+",
    "roleArn": r"arn:[^:]*:iam::[0-9]{12}:role/.+",
}
# What an id of EC2 begins with, and the type and the account of its resource.
IDS = {
    "i": "{a}:instance",
    "vol": "{a}:volume",
    "snap": ":snapshot",
    "ami": ":image",
    "sg": "{a}:security-group",
    "eni": "{a}:network-interface",
    "subnet": "{a}:subnet",
    "vpc": "{a}:vpc",
    "rtb": "{a}:route-table",
    "igw": "{a}:internet-gateway",
    "nat": "{a}:natgateway",
    "eipalloc": "{a}:elastic-ip",
    "lt": "{a}:launch-template",
    "vpce": "{a}:vpc-endpoint",
    "acl": "{a}:network-acl",
}
# What actions of a service are on: the first line that has the action counts, and of its choices the first that the event names;
# what '&' joins is wanted together, and '*' is a call of no resource.
RULES: Dict[str, List[Tuple[str, str]]] = {
    "s3": [
        ("ListAllMyBuckets|*AccountPublicAccessBlock", "*"),
        ("*Object|*ObjectVersion|*ObjectAcl|*ObjectVersionAcl|*ObjectTagging|*ObjectVersionTagging", "object"),
        ("*ObjectRetention|*ObjectLegalHold|*ObjectTorrent|*ObjectAttributes|*ObjectVersionAttributes", "object"),
        ("AbortMultipartUpload|ListMultipartUploadParts", "object"),
        ("*AccessPoint*|*Job*|*StorageLens*|*AccessGrant*", ""),
        ("*", "bucket"),
    ],
    "kms": [
        ("CreateKey|ListKeys|ListAliases|GenerateRandom|DescribeCustomKeyStores", "*"),
        ("CreateAlias|UpdateAlias", "alias&target-key"),
        ("DeleteAlias", "alias&key"),
        ("ReEncryptFrom", "source-key"),
        ("ReEncryptTo", "destination-key"),
        ("*", "key"),
    ],
    "sqs": [("ListQueues", "*"), ("CreateQueue|GetQueueUrl", "named-queue"), ("*", "queue")],
    "sns": [
        ("ListTopics|ListSubscriptions|*SMS*|*PhoneNumber*|ListPlatformApplications", "*"),
        ("CreateTopic", "named-topic"),
        ("*", "topic|target|resource"),
    ],
    "dynamodb": [
        ("ListTables|ListBackups|ListExports|ListImports|ListGlobalTables|DescribeLimits|DescribeEndpoints", "*"),
        ("BatchGetItem|BatchWriteItem", "tables"),
        ("Query|Scan", "index|table"),
        ("*", "table|stream|backup|resource"),
    ],
    "lambda": [
        ("ListFunctions|ListLayers|ListEventSourceMappings|GetAccountSettings|ListCodeSigningConfigs", "*"),
        ("*EventSourceMapping", "mapping"),
        ("PublishLayerVersion|ListLayerVersions", "layer"),
        ("*Layer*", ""),
        ("*", "qualified|function|tagged"),
    ],
    "secretsmanager": [("ListSecrets|GetRandomPassword", "*"), ("CreateSecret", "made-secret"), ("*", "secret")],
    "ssm": [
        ("DescribeParameters|ListDocuments|ListCommands|ListCommandInvocations|DescribeInstanceInformation", "*"),
        ("GetParameter|PutParameter|DeleteParameter|GetParameterHistory|*LabelParameterVersion", "parameter"),
        ("GetParameters|DeleteParameters", "parameters"),
        ("GetParametersByPath", "path"),
        ("*Document", "document"),
        ("StartSession", "session"),
        ("*", ""),
    ],
    "iam": [
        ("ListUsers|ListRoles|ListGroups|ListPolicies|ListAccountAliases|ListInstanceProfiles|ListSAMLProviders", "*"),
        ("GetAccount*|ListOpenIDConnectProviders|ListServerCertificates|ListVirtualMFADevices|*CredentialReport", "*"),
        ("CreateUser", "new-user"),
        ("CreateRole", "new-role"),
        ("CreateGroup", "new-group"),
        ("CreatePolicy", "new-policy"),
        ("CreateInstanceProfile", "new-profile"),
        ("*InstanceProfile", "profile"),
        ("ListEntitiesForPolicy|*PolicyVersion|*PolicyVersions|GetPolicy|DeletePolicy|TagPolicy|UntagPolicy", "policy"),
        ("AttachRolePolicy|DetachRolePolicy|*Role|*RolePolicy|*RolePolicies|*Role*", "role"),
        ("AttachGroupPolicy|DetachGroupPolicy|*Group|*GroupPolicy|*GroupPolicies|AddUserToGroup", "group"),
        ("*SAMLProvider", "saml"),
        ("*OpenIDConnectProvider*", "oidc"),
        ("GetUser|ListAccessKeys|*AccessKey|ChangePassword|ListMFADevices", "user|caller"),
        ("AttachUserPolicy|DetachUserPolicy|*User*|*LoginProfile|*MFADevice", "user"),
        ("*", ""),
    ],
    "sts": [
        ("DecodeAuthorizationMessage|GetAccessKeyInfo", "*"),
        ("GetFederationToken", "federated"),
        ("*", "assumed"),
    ],
    "ec2": [
        ("Describe*Attribute", ""),
        ("Describe*", "*"),
        ("StartInstances|StopInstances|RebootInstances|TerminateInstances|*onitorInstances", "instances"),
        ("GetConsoleOutput|GetConsoleScreenshot|GetPasswordData", "instance"),
        ("AttachVolume|DetachVolume", "instance&volume"),
        ("DeleteVolume|ModifyVolume", "volume"),
        ("DeleteSnapshot", "snapshot"),
        ("DeregisterImage", "image"),
        ("DeleteSecurityGroup|*SecurityGroupIngress|*SecurityGroupEgress", "security-group"),
        ("DeleteNetworkInterface", "interface"),
        ("DeleteVpc", "vpc"),
        ("DeleteSubnet", "subnet"),
        ("ReleaseAddress", "address"),
        ("DeleteKeyPair", "key-pair"),
        ("CreateTags|DeleteTags", "by-id"),
        ("*", ""),
    ],
}
# Calls that are of more than this table has where the event names this member.
UNLESS = {"ssm:StartSession": "documentName", "sqs:GetQueueUrl": "queueOwnerAWSAccountId"}
